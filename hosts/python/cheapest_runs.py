from docket import Docket, Draft, Fixed, Stuck

desk = Docket()
with open("examples/example.txt", "rb") as file:
    desk.lodge(file.read().partition(b"kind=schedule")[0])
nothing = bytes(2 * 2)  # two units by two periods, all free
second_on = bytes([Fixed.FREE, Fixed.FREE, Fixed.FREE, Fixed.ON])  # unit 2 on in period 2
off_then_on = bytes([Fixed.OFF, Fixed.ON, Fixed.FREE, Fixed.FREE])  # unit 1 off in period 1, on in period 2
for fixed in (nothing, second_on, off_then_on):
    match desk.cheapest_runs(prices=[10, 14], reserves=[0, 0], fixed=fixed):
        case Draft(value, runs, shortfalls):
            print("value", value, "runs", *runs, "short by", *shortfalls)
        case Stuck(unit):
            print("unit", unit, "has no run")
