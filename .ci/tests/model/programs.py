"""The programs that are modelled, by name: functions from words and an input to an outcome."""
from . import drive, record
from .group import Group
from .replica import Replica

PROGRAMS = {'zenoh_drive': drive.run, 'zs_replica': Replica.run, 'zs_group': Group.run, 'zs_record': record.run}
