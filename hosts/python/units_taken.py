from docket import Docket, Fixed

desk = Docket()
with open("examples/example.txt", "rb") as file:
    desk.lodge(file.read().partition(b"kind=schedule")[0])
nothing = bytes(2 * 2)  # two units by two periods, all free
first_off = bytes([Fixed.FREE, Fixed.OFF, Fixed.FREE, Fixed.FREE])  # unit 1 off in period 2
print(desk.units_taken(2, fixed=nothing))
print(desk.units_taken(2, most=1, fixed=nothing))
print(desk.units_taken(2, fixed=first_off))
