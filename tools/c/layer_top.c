/* --------------------------------------------------------------- the device */

static inline uintptr_t uart_address(const struct u16550_device *device, uint8_t offset)
{
    return (uintptr_t)(device->base + uart_distance(offset, device->stride));
}

static inline uint8_t uart_device_read(struct u16550_device *device, uint8_t offset)
{
    return device->io.read(device->io.context, uart_address(device, offset));
}

static inline void uart_device_write(struct u16550_device *device, uint8_t offset, uint8_t value)
{
    device->io.write(device->io.context, uart_address(device, offset), value);
}

/* The register USR of a DesignWare UART lies beyond the eight. */
enum { UART_USR = 31 };

static inline uint8_t uart_device_read_usr(struct u16550_device *device)
{
    return uart_device_read(device, UART_USR);
}

/* Memory of the caller, of which the rings take cells from the front. */
struct uart_memory {
    uint8_t *data;
    size_t len;
};

/* Whoever is asked whether to keep waiting. */
struct uart_patience {
    uint8_t (*keep_waiting)(void *context);
    void *context;
};

static inline bool uart_patience_keep_waiting(struct uart_patience *patience)
{
    return patience->keep_waiting(patience->context) != 0;
}

/* The ports of a line: see u16550_line_handle. */
struct uart_line_ports {
    struct u16550_line_port *ports;
    size_t count;
};

/* What came back in a loopback test that failed. */
struct uart_loopback_failure {
    uint8_t expected;
    uint8_t actual;
    struct uart_bytes16 expected_msg;
    struct uart_bytes16 actual_msg;
};

static bool
uart_cells_in_memory(struct uart_memory *memory, uint8_t value, size_t count, struct u16550_core_vec_u8 *cells);
static inline size_t uart_line_ports_number(const struct uart_line_ports *ports);
static bool
uart_line_ports_lower(struct uart_line_ports *ports, size_t port, size_t limit, uint32_t rounds);
static void uart_line_ports_raise(struct uart_line_ports *ports, size_t port);
