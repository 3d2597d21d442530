"""README's first script: prints the two MAPs."""

from mapsched import Admit, Ask, BestEffort, Build, Built, Config, Scheduler

config = Config(
    ticks=4, bytes_per_slot=16, overhead=2, frame=40, cycle=20, req_slots=4, poll_slots=2, lead=40, short_max=8,
    quantum=64, grant_cap=2000, receivers=1, calls=1000, start=800, ranging_start=0, ranging_end=0, data_start=0,
    data_end=0, channel=3, ucd_count=1,
)
flow = BestEffort(priority=3, rate=0, burst=0)

with Scheduler(config) as scheduler:
    for call in [Build(760), Admit(17, flow), Ask(receiver=0, sid=17, bytes=100, heard=801), Build(800)]:
        reply = scheduler.call(call)
        if isinstance(reply, Built):
            print(reply.payload.hex())
