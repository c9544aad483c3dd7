# Writes bank.set and stdin: a rig with ten wheels, a hundred scans, one every five seconds.
import math, struct

ACK, RESET_COUNT, DISABLE, ENABLE, SUPPRESS, UNSUPPRESS = 1 << 7, 1 << 6, 1 << 9, 1 << 10, 1 << 11, 1 << 12
WHEELS, SCANS, STEP = 10, 100, 5000

# Silent sensor: in alarm when In is 1 for 30 s; AckRequired. Severity 400.
silent = struct.pack("<BII", 0b011, 400, 30_000)
# Pressure in kPa, nominal 800: HH, H, L, LL enabled, AckRequired; the rate in kPa per second over 10 s; MinDuration 5 s.
pressure = struct.pack("<B6I7fII", 0b11111, 900, 600, 600, 900, 300, 800,
                       950, 900, 700, 600, 10, 3, 3, 10_000, 5_000)
with open("bank.set", "wb") as out:
    out.write(bytes([WHEELS]) + silent * WHEELS + bytes([WHEELS]) + pressure * WHEELS)


def is_silent(wheel, scan):
    return (wheel == 5 and 30 <= scan < 60) or (wheel == 9 and 25 <= scan < 55)


def kpa(wheel, scan):
    level = 800 + math.sin(scan * 0.7 + wheel)
    if wheel == 3:  # a slow leak from scan 10 on, and air at scan 85
        level -= 4 * max(0, min(scan, 84) - 10) if scan < 85 else 0
    if wheel == 7:  # a brake that drags from scan 20 to 60 heats the tyre; then it cools
        level += 4 * max(0, min(scan, 60) - 20) - 6 * max(0, min(scan, 86) - 60)
    return level


# (scan, alarm): command bits. Alarms 1 to 10 are the silent sensors, 11 to 20 the pressures, of wheels 1 to 10.
commands = {
    (20, 9): DISABLE,      # a lifted axle's sensor is taken out of watch
    (42, 5): ACK,          # the driver has seen that sensor 5 is silent
    (45, 13): ACK,         # and that wheel 3 is low
    (50, 17): SUPPRESS,    # the warm wheel is known
    (70, 9): ENABLE,
    (80, 17): UNSUPPRESS,
    (90, 13): ACK | RESET_COUNT,
}
with open("stdin", "wb") as out:
    for scan in range(SCANS):
        record = struct.pack("<Q", scan * STEP)
        for wheel in range(1, WHEELS + 1):
            record += struct.pack("<BI", is_silent(wheel, scan), commands.get((scan, wheel), 0))
        for wheel in range(1, WHEELS + 1):
            record += struct.pack("<fI", kpa(wheel, scan), commands.get((scan, 10 + wheel), 0))
        out.write(record)
