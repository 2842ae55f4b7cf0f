package janitor

// Kept are objects in memory.
type Kept = kept

// LogOf256 returns the tiles of a log of 256 entries, with partial tiles of its first three, and its head.
var LogOf256 = logOf256
