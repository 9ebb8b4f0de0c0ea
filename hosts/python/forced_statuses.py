from docket import Docket, Fixed

desk = Docket()
with open("examples/example.txt", "rb") as file:
    desk.lodge(file.read().partition(b"kind=schedule")[0])
nothing = bytes(2 * 2)  # two units by two periods, all free
second_on = bytes([Fixed.FREE, Fixed.FREE, Fixed.FREE, Fixed.ON])  # unit 2 on in period 2
for fixed in (nothing, second_on):
    table = desk.forced_statuses(prices=[10, 14], reserves=[0, 0], fixed=fixed)
    for unit, row in enumerate(table.units, start=1):
        for period, forced in enumerate(row, start=1):
            off, on = ("stuck" if value is None else value for value in (forced.off, forced.on))
            print("unit", unit, "in period", period, "off", off, "on", on)
