import re
from docket import Docket, Held, Passed, Refused, Schedule, Tree

desk = Docket()
with open("examples/kazarlis-10.txt", "rb") as file:
    texts = re.findall(rb"(?s)kind=.*?\nend=.*?\n", file.read())
for text in texts:
    match desk.lodge(text).verdict:
        case Held(Schedule(cost)) | Passed(Schedule(cost)):
            print("a schedule that costs", cost)
        case Held(Tree(bound)) | Passed(Tree(bound)):
            print("no schedule costs less than", bound)
        case Refused(number, line, unit, period):
            print("refused by", number, "in line", line, "for unit", unit, "in period", period)
print("gap:", desk.report().gap)
