/*
 * A product of 16 bits by shifts: processors of the family MSP430 have no instruction for it, and a compiler calls this function. A program
 * that is linked with the library of its compiler may take that one's.
 */
#if defined(__MSP430__) || defined(UART_BY_SHIFTS)
#if defined(__cplusplus)
extern "C"
#endif
uint16_t __mspabi_mpyi(uint16_t one, uint16_t other);

__attribute__((__weak__)) uint16_t __mspabi_mpyi(uint16_t one, uint16_t other)
{
    uint16_t product = 0;
    for (; other != 0; one = (uint16_t)(one << 1), other = (uint16_t)(other >> 1)) {
        if ((other & 1) != 0)
            product = (uint16_t)(product + one);
    }
    return product;
}
#endif
