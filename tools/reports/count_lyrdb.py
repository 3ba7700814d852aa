"""Loads a report database with KLayout and counts what is in it.

klayout -b -r tools/reports/count_lyrdb.py -rd report=REPORT

Prints for each category its name, its description and the number of its items, and then the boxes of each item.
"""
import pya

database = pya.ReportDatabase("")
database.load(report)
for category in database.each_category():
    print(f"{category.name()} ({category.description}): {category.num_items()} items")
    for item in category.each_item():
        print("  " + " and ".join(str(value.box()) for value in item.each_value() if value.is_box()))
