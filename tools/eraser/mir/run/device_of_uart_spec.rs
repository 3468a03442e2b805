
impl crate::proved::uart_spec::backend::Backend for Device {
    fn read(&mut self, offset: u8) -> u8 {
        read(u64::from(offset), REGISTERS)
    }
    fn write(&mut self, offset: u8, value: u8) {
        write(u64::from(offset), value, REGISTERS);
    }
}
