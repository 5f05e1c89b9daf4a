"""A tree of two supplies at one station, for the tests of bridges to hardware."""

TREE = """tree 5
state UNKNOWN
state OFF
state RAMPING
state READY
state ERROR
action CONFIGURE
action STANDBY
station A 127.0.0.1:%d
operator ANN A
devclass SUPPLY UNKNOWN
move SUPPLY OFF CONFIGURE RAMPING
move SUPPLY READY STANDBY OFF
unitclass UNIT UNKNOWN
accept UNIT CONFIGURE
accept UNIT STANDBY
any UNIT ERROR ERROR
any UNIT UNKNOWN UNKNOWN
any UNIT RAMPING RAMPING
any UNIT OFF OFF
any UNIT READY READY
domain TPC A UNIT -
device HV TPC SUPPLY
device LV TPC SUPPLY
"""
# The same with a station for a screen.
SCREENED = TREE.replace("operator ANN A", "station SCREEN 127.0.0.1:%d\noperator ANN A\noperator WATCHER SCREEN")
