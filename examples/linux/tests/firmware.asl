// SPDX-License-Identifier: MIT OR GPL-2.0-only
// Firmware that switches a serial port on and off, as that of boards does whose ports are in a Super I/O. QEMU's own firmware does not, and
// its ports on the board cannot be switched. So the chip here is that of a card on PCI, which answers at its ports only while a bit of its
// command register is set.
DefinitionBlock ("", "SSDT", 2, "U16550", "SWITCHED", 1)
{
    External (\_SB.PCI0, DeviceObj)
    Scope (\_SB.PCI0)
    {
        Device (CHIP)
        {
            Name (_ADR, 0x00040000)
            OperationRegion (REGS, PCI_Config, 0, 0x40)
            Field (REGS, DWordAcc, NoLock, Preserve) { Offset (4), COMM, 32, Offset (0x10), BAR0, 32 }
        }
        // Where the card's interrupt becomes one of the board.
        Device (ROUT)
        {
            Name (_ADR, 0x00010000)
            OperationRegion (REGS, PCI_Config, 0x60, 4)
            Field (REGS, ByteAcc, NoLock, Preserve) { Offset (3), LINK, 8 }
        }
    }
    Scope (\_SB)
    {
        Device (SWIT)
        {
            Name (_HID, EisaId ("PNP0501"))
            Name (_UID, 7)
            Name (ON, 1)
            Name (NONE, ResourceTemplate () { IO (Decode16, 0, 0, 8, 8) IRQ (Level, ActiveHigh, Shared) {} })
            Name (HERE, ResourceTemplate () { IO (Decode16, 0, 0, 8, 8, PORT) IRQ (Level, ActiveHigh, Shared) {11} })
            CreateWordField (HERE, PORT._MIN, LOWP)
            CreateWordField (HERE, PORT._MAX, HIGH)
            Method (_STA) { If (ON) { Return (0x0F) } Return (0x0D) }
            Method (_DIS) { ON = 0  \_SB.PCI0.CHIP.COMM = 0 }
            Method (_SRS, 1) { ON = 1  \_SB.PCI0.CHIP.COMM = 1  \_SB.PCI0.ROUT.LINK = 11 }
            Method (_PRS) { LOWP = \_SB.PCI0.CHIP.BAR0 & 0xFFF8  HIGH = LOWP  Return (HERE) }
            Method (_CRS) { If (ON) { \_SB.PCI0.ROUT.LINK = 11  Return (_PRS ()) } Return (NONE) }
        }
    }
}
