import sys

# Each sum has gathered the 0 of its ramp and waits for its other channel, the 1 is in the queue, and the ramp waits to put the 2.
lines = ["trace r0.output", "0 0.0 0", "1 0.0 1", "2 0.0 2", *(f"full a{number}.plus.0 1" for number in range(3000)), "end queue . 3000"]
if sys.stdin.read().splitlines() != lines:
    print("not the three thousand queues in their order, each with one token")
    sys.exit(1)
