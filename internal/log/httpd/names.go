package httpd

import (
	"strconv"
	"strings"

	"golang.org/x/mod/sumdb/tlog"

	"wagtenib/internal/ct"
)

// The bounds of a tile's name: a log of 2^40 leaves has one hash of level 5, and less than 2^32 tiles of a level.
const (
	maxLevel = 5
	maxTiles = 1 << 32
)

// readTileName reads the name of a tile of a log.
func readTileName(name string) (tlog.Tile, bool) {
	of, ok := ct.ParseTile(name)
	return of, ok && of.L <= maxLevel && of.N < maxTiles
}

// isOf reports whether a content has as many hashes, or entries, as a tile.
func isOf(of tlog.Tile, content []byte) bool {
	if of.L >= 0 {
		return len(content) == 32*of.W
	}
	leaves, err := ct.ReadDataTile(content)
	return err == nil && len(leaves) == of.W
}

// isFingerprint reports whether a text is 32 bytes in lower-case hexadecimal digits.
func isFingerprint(text string) bool {
	return len(text) == 64 && strings.Trim(text, "0123456789abcdef") == ""
}

func isDigits(text string) bool { return text != "" && strings.Trim(text, "0123456789") == "" }

// number parses a decimal number from 0 to maximum, without a sign and without leading zeros.
func number(text string, maximum uint64) (uint64, bool) {
	if !isDigits(text) || len(text) > 1 && text[0] == '0' {
		return 0, false
	}
	value, err := strconv.ParseUint(text, 10, 64)
	return value, err == nil && value <= maximum
}
