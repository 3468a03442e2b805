
impl crate::proved::uart_design_ware::DesignWareRegisters for Device {
    fn read_usr(&mut self) -> u8 {
        read(USR, REGISTERS)
    }
}
