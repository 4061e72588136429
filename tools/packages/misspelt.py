"""Each line after the imports is to be refused by a type checker."""
from nashirudder import Fleet, LiveFleet
from nashirudder.library import Fleet as InProcess
from nashirudder.library import Handle, Map, Shield
from nashirudder.stream import FleetStream

Fleet("row.map", [0], mailbx=3)
Fleet("row.map", [0], ties="sout")
InProcess("row.map", [0], quue=3)
InProcess(txt="", robots=[0])
LiveFleet("row.map", [0], chaptr=3)
LiveFleet("row.map", [0], journl=True)
FleetStream.open("row.map", [0], lne=3)
Handle("", [0], mailbx=3)
Handle.reopen("", "", lif=3)
Map("", buil="")
Shield("", robot=1)
Shield("", 1).step([0], [0], [[0]], ot=None)
