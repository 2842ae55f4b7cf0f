package logclient_test

import (
	"bytes"
	"encoding/binary"
	"net/http"
	"testing"

	"wagtenib/bindings/go/wagtenib"
	"wagtenib/internal/ct"
	"wagtenib/internal/log/chain"
	"wagtenib/internal/log/service"
	"wagtenib/internal/logclient"
)

// TestReadsTheLargestDataTile reads a full data tile whose entries have as many bytes and as many issuers as a log of
// ctserve accepts, and splits it by the library.
func TestReadsTheLargestDataTile(t *testing.T) {
	var largest []byte
	for index := range uint64(ct.TileWidth) {
		largest = binary.BigEndian.AppendUint64(largest, 1_800_000_000_000+index)
		largest = append(largest, 0, 0, byte(service.MaxEntry>>16), byte(service.MaxEntry>>8&0xff), byte(service.MaxEntry&0xff))
		largest = append(largest, bytes.Repeat([]byte{byte(index)}, service.MaxEntry)...)
		// The extension leaf_index (C2SP static-ct-api).
		largest = append(largest, 0, 8, 0, 0, 5)
		largest = append(largest, binary.BigEndian.AppendUint64(nil, index)[3:]...)
		largest = binary.BigEndian.AppendUint16(largest, uint16(32*chain.MaxCertificates))
		largest = append(largest, make([]byte, 32*chain.MaxCertificates)...)
	}
	c := client(t, http.HandlerFunc(func(w http.ResponseWriter, _ *http.Request) { _, _ = w.Write(largest) }),
		logclient.Options{})
	read := 0
	err := c.DataTiles(t.Context(), 0, ct.TileWidth, func(tile logclient.DataTile, _ bool) error {
		if !bytes.Equal(tile.Bytes, largest) {
			t.Errorf("the tile has %d bytes, and %d or other ones are returned", len(largest), len(tile.Bytes))
		}
		entries, err := wagtenib.DataTileLeaves(tile.Bytes)
		read = len(entries)
		return err
	})
	if err != nil || read != ct.TileWidth {
		t.Errorf("a data tile of %d bytes: %d entries, %v", len(largest), read, err)
	}
}
