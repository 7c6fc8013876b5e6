"""chartkey's modules: papers to streams of commands, and the proved program's log to a key. They compute no answer."""

VERSION = "1.5.0"
