
impl crate::proved::uart_16550::backend::PortAccess for Device {
    fn port_in(&mut self, port: u16) -> u8 {
        read(u64::from(port), PORTS)
    }
    fn port_out(&mut self, port: u16, value: u8) {
        write(u64::from(port), value, PORTS);
    }
}

impl crate::proved::uart_16550::backend::ByteAccess for Device {
    fn load(&mut self, address: usize) -> u8 {
        read(address as u64, MEMORY)
    }
    fn store(&mut self, address: usize, value: u8) {
        write(address as u64, value, MEMORY);
    }
}

impl crate::proved::uart_16550::Patience for Device {
    fn keep_waiting(&mut self) -> bool {
        keep_waiting()
    }
}
