"""What the measurements share with the tests: free ports, systems, and a cluster of an etcd."""
import os
import sys

sys.path.append(os.path.join(os.path.dirname(os.path.dirname(os.path.abspath(__file__))), "tests"))

import systems
from etcd import Cluster
from status import BAD, Watched, asks, have_ended, open_many
from systems import free_ports
