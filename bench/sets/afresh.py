"""Does what the events of a folder ask over the data of its form, evaluating each expression of a bind afresh at each line, by lxml.

Usage: afresh.py FOLDER. Writes a line for each event, which is flushed before the next one is read, and the total at the end."""
import json
import sys

from lxml import etree


def tree(lit):
    node = etree.Element(lit[0])
    for part in lit[1:]:
        if isinstance(part, str):
            node.text = part
        else:
            node.append(tree(part))
    return node


folder = sys.argv[1]
with open(f"{folder}/form.json") as form:
    model = json.load(form)[2]
data = tree(model[1][1])
each, whole = etree.XPath("../qty * ../price"), etree.XPath("sum(../item/sum)")
sums, total = data.findall("item/sum"), data.find("total")
quantities = data.findall("item/qty")


def written(number):
    return str(int(number)) if number == int(number) else repr(number)


count = 0
with open(f"{folder}/events") as events:
    for line in events:
        _, id, _, text = json.loads(line)
        quantities[int(id[1:]) - 1].text = text
        for node in sums:
            node.text = written(each(node))
        total.text = written(whole(total))
        count += 1
        print(f"ok {count}", flush=True)
print(total.text)
