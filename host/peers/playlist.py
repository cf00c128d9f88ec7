"""playlist.py FILE: a playlist of `daterange playlist` through python3-m3u8: of each line the ID, the date and the cue that it reads are what was written."""
import sys

import m3u8

text = open(sys.argv[1]).read()
written = [line[2:].split("|") for line in text.split("\n") if line.startswith("# ")]
read = [one for segment in m3u8.loads(text).segments for one in segment.dateranges]
if len(read) != len(written) or not read:
    sys.exit(f"{len(written)} lines written, {len(read)} read")
for (id_, date, name, digits), one in zip(written, read):
    cues = {"SCTE35-CMD": one.scte35_cmd, "SCTE35-OUT": one.scte35_out, "SCTE35-IN": one.scte35_in}
    if one.id != id_ or one.start_date != date or {k: v for k, v in cues.items() if v} != {name: digits}:
        sys.exit(f"{id_}, {date}, {name} {digits} was written; {one.id}, {one.start_date}, {cues} is read")
print(f"python3-m3u8 reads {len(read)} lines of ours: ID, START-DATE and cue as they were written")
