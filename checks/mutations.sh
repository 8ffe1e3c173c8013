#!/bin/bash
# That contracts, definitions and tests have teeth: every edit that the prover must refuse
# (mutations/edits.py), then each law and definition with a part turned and each meaning that code and
# definition share (mutations/planted.sh), and whether rows are false once a part of their law is empty
# (mutations/emptied.py); what is turned where no proof is (mutations/plants.py); that each branch of the
# libraries is reached (mutations/reached.py), each bound, term and number of their code held by a case or a
# test (mutations/turned.py), and those of `hid`, with its statements and conditions, by a stored run
# (mutations/turned_hid.py). It takes hours, and is run before a version gets its number.
set -eu
export LC_ALL=C
cd "$(dirname "$0")/mutations"
python3 edits.py
bash planted.sh
python3 emptied.py --false
python3 plants.py
python3 reached.py
python3 turned.py
python3 turned_hid.py
