# A configuration of OpenRAM.
word_size = 2
num_words = 16
num_spare_rows = 1
tech_name = "examples/kit/demo_tech"
output_path = "."
import os
output_name = "from_openram"
