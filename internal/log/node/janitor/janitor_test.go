package janitor

import (
	"bytes"
	"context"
	"encoding/binary"
	"errors"
	"fmt"
	"sort"
	"strings"
	"testing"
	"time"

	"golang.org/x/mod/sumdb/tlog"

	"wagtenib/internal/blob"
	"wagtenib/internal/ct"
	"wagtenib/internal/log/node/decider"
	"wagtenib/internal/tiles"
)

// kept are objects in memory.
type kept map[string][]byte

func (k kept) Get(_ context.Context, name string, _ int64) ([]byte, error) {
	content, ok := k[name]
	if !ok {
		return nil, blob.ErrAbsent
	}
	return content, nil
}

func (k kept) List(_ context.Context, prefix, after string, _ int) (names []string, err error) {
	for name := range k {
		if strings.HasPrefix(name, prefix) && name > after {
			names = append(names, name)
		}
	}
	sort.Strings(names)
	return names, nil
}

func (k kept) Delete(_ context.Context, name string) error {
	delete(k, name)
	return nil
}

// still is a clock that does not move.
type still struct{}

func (still) Elapsed() time.Duration { return 0 }
func (still) Within(ctx context.Context, _ time.Duration) (context.Context, context.CancelFunc) {
	return context.WithCancel(ctx)
}
func (still) Wait(ctx context.Context, _ time.Duration, _ <-chan struct{}) error { return ctx.Err() }

// hashes are those of a tree, as x/mod keeps them.
type hashes []tlog.Hash

func (h hashes) ReadHashes(indexes []int64) (found []tlog.Hash, err error) {
	for _, i := range indexes {
		found = append(found, h[i])
	}
	return found, nil
}

// logOf256 returns the tiles of a log of 256 entries, with partial tiles of its first three, and its head.
func logOf256(t *testing.T) (kept, ct.TreeHead) {
	t.Helper()
	var all hashes
	var data []byte
	objects := kept{}
	for i := range uint64(ct.TileWidth) {
		extensions := ct.IndexExtension(i)
		entry := append(binary.BigEndian.AppendUint64(nil, 1800000000000+i), 0, 0, 0, 0, 1, byte(i))
		entry = append(binary.BigEndian.AppendUint16(entry, uint16(len(extensions))), extensions...)
		data = append(append(data, entry...), 0, 0)
		added, err := tlog.StoredHashes(int64(i), append([]byte{0, 0}, entry...), all)
		if err != nil {
			t.Fatal(err)
		}
		if all = append(all, added...); i == 2 {
			objects["tile/data/000.p/3"] = bytes.Clone(data)
		}
	}
	objects["tile/data/000"] = data
	for _, size := range []int64{3, ct.TileWidth} {
		for _, one := range tlog.NewTiles(8, 0, size) {
			content, err := tlog.ReadTileData(one, all)
			if err != nil {
				t.Fatal(err)
			}
			objects[ct.TileName(one)] = content
		}
	}
	root, err := tlog.TreeHash(ct.TileWidth, all)
	if err != nil {
		t.Fatal(err)
	}
	return objects, ct.TreeHead{TreeSize: ct.TileWidth, Timestamp: 1800000001000, Root: root}
}

// TestKeepsPartialTilesOfDamagedTile bends a full tile, of the data or of the hashes. Its partial ones must stay, and
// go once it is right again.
func TestKeepsPartialTilesOfDamagedTile(t *testing.T) {
	for level, full := range map[int]string{-1: "tile/data/000", 0: "tile/0/000"} {
		objects, head := logOf256(t)
		j, err := New(Config{
			Objects: objects, Clock: still{}, Decider: decider.New(),
			Newest: func() (Newest, bool) { return Newest{Head: head}, true },
			Random: func() (uint64, error) { return 0, nil }, Keep: Keep{time.Second, 1, 1, 1, 1, 1, 1, 1},
		})
		if err != nil {
			t.Fatal(err)
		}
		partial, right := full+".p/3", objects[full]
		if _, ok := objects[partial]; !ok {
			t.Fatalf("there is no %s", partial)
		}
		for _, bent := range [][]byte{append([]byte{right[0] ^ 1}, right[1:]...), right[:len(right)-32], nil} {
			if objects[full] = bent; bent == nil {
				delete(objects, full)
			}
			if err := j.deletePartials(context.Background(), level, 0, head); !errors.Is(err, tiles.ErrDamaged) ||
				objects[partial] == nil {
				t.Errorf("%s of %d bytes: %v, and %s has %d", full, len(bent), err, partial, len(objects[partial]))
			}
		}
		objects[full] = right
		if err := j.deletePartials(context.Background(), level, 0, head); err != nil || objects[partial] != nil ||
			fmt.Sprint(j.Report().Tiles) != "1" {
			t.Errorf("%s is whole: %v, and %s has %d bytes", full, err, partial, len(objects[partial]))
		}
	}
}

func TestRefusesConfigurationWithoutTimes(t *testing.T) {
	if _, err := New(Config{}); !errors.Is(err, ErrConfig) {
		t.Errorf("an empty configuration: %v", err)
	}
}

// TestSettledHeadIsOldEnough has a head become settled only after it was seen for the whole time, however often newer
// ones come.
func TestSettledHeadIsOldEnough(t *testing.T) {
	var s settled
	head := func(size uint64) ct.TreeHead { return ct.TreeHead{TreeSize: size, Timestamp: 10 * size} }
	for second, expected := range []uint64{0, 0, 0, 1, 1, 1, 4, 4, 4, 7} {
		s.look(head(uint64(second+1)), time.Duration(second)*time.Second, 3*time.Second)
		if s.head.TreeSize != expected {
			t.Errorf("after %d s the head of %d entries is settled, and not that of %d", second, s.head.TreeSize, expected)
		}
	}
}

// TestNamesOfHeads reads the names that it writes, and no others.
func TestNamesOfHeads(t *testing.T) {
	name := headName(ct.TreeHead{TreeSize: 12, Timestamp: 1800000000123})
	if timestamp, ok := timestampOf(name); name != "heads/00000000000000000012-00000001800000000123" || !ok ||
		timestamp != 1800000000123 {
		t.Errorf("%s is read as %d, %v", name, timestamp, ok)
	}
	for _, wrong := range []string{"heads/", "heads/12-13", name + "0", name[:len(name)-1], "tile/0/000"} {
		if _, ok := timestampOf(wrong); ok {
			t.Errorf("%s is read as the name of a head", wrong)
		}
	}
}
