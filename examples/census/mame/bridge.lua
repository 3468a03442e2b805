-- A program of MAME makes accesses at a serial chip of its machine: what and when says the module of bridge.c. integration/mame sets the rest.
package.cpath = os.getenv("BRIDGE")
local next_access = require("accesses")
local machine = manager.machine
local space = machine.devices[":maincpu"].spaces[os.getenv("SPACE")]
local base = tonumber(os.getenv("BASE"))
-- What ISR shows, without a read: its bit 0 is clear while the interrupt output is set.
local isr = emu.item(machine.devices[os.getenv("CHIP")].items["0/m_regs.iir"])

local run = coroutine.create(function()
  local value = 0
  while true do
    local what, offset, written, seconds = next_access(value, isr:read(0))
    if seconds > 0 then emu.wait(seconds) end
    if what == "read" then
      value = space:read_u8(base + offset)
    elseif what == "write" then
      space:write_u8(base + offset, written)
    elseif what == "end" then
      machine:exit()
      return
    end
  end
end)
local is_well, why = coroutine.resume(run)
if not is_well then print(why) end
