"""Turns a block of 64 frames by 16 cameras, so that each camera's frames stand together."""
from array import array

import zibsnarda

FRAMES, CAMERAS = 64, 16

block = array("I", [100 * camera + frame for frame in range(FRAMES) for camera in range(CAMERAS)])
scratch = array("I", [0] * FRAMES)  # as many words as the longer side
zibsnarda.turn(block, scratch, FRAMES, CAMERAS)
for camera in range(CAMERAS):
    frames = block[camera * FRAMES : (camera + 1) * FRAMES]
    print(f"camera {camera}: {frames[0]} to {frames[-1]}")
