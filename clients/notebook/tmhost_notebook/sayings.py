"""In words of a user, what refusals say."""

SAYINGS = {
    "InFlight": "the cell waits for its answer",
    "BadInput": "a cell has at most 4,095 bytes, and no control characters but tabs and ends of lines",
    "BadName": "a name has 1 to 32 letters, digits, _ and -",
    "BadWords": "1 to 16 words, each of at most 1,024 bytes, with one space between them",
    "SessionExists": "there is a session with this name already",
    "NoSession": "there is no session with this name",
    "NoField": "the cell isn't there any more",
    "Busy": "its interpreter is at work",
    "NoTab": "its interpreter answers no completions",
    "QueueFull": "1,024 lines wait in this session already",
    "TooManyFields": "there are 10,000 cells",
    "TooManySessions": "there are 64 sessions",
    "JournalFull": "the worksheet's file is full",
    "OutOfMemory": "there is no memory for it",
}
