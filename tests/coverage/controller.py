"""The crates that a controller links to call `step` and `drain`."""
LINKED = """base crc16 command registers reading writing line state queue deeds next place_rules line_rules frame_rules rules sender reader plan
    forwards writes closing release answers host kept ticks clock events quick bridge lull drain""".split()
