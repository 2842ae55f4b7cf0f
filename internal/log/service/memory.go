package service

import (
	"context"
	"encoding/json"
	"errors"
	"fmt"

	"wagtenib/internal/blob"
	"wagtenib/internal/ct"
	"wagtenib/internal/log/node"
)

// memory keeps the newest head that this machine accepted in a file of this machine.
type memory struct {
	path  string
	logID [32]byte
}

// latestHead is the content of that file in JSON: a tree head with the field names of get-sth (RFC 6962, section 4.3).
type latestHead struct {
	LogID []byte `json:"log_id"`
	*ct.HeadJSON
}

// Load returns the head in the file. It returns nil if there is no file.
func (m memory) Load(context.Context) (*ct.TreeHead, error) {
	if m.path == "" {
		return nil, nil
	}
	content, err := blob.KeptFile(m.path)
	if errors.Is(err, blob.ErrAbsent) {
		return nil, nil
	}
	if err != nil {
		return nil, fmt.Errorf("serve: the latest head: %w", err)
	}
	var read latestHead
	err = json.Unmarshal(content, &read)
	head, malformed := read.Head()
	if err != nil || malformed != nil || head == nil || len(read.LogID) != 32 {
		return nil, fmt.Errorf("%w: %s has no tree head: %.80q", node.ErrDamaged, m.path, content)
	}
	if [32]byte(read.LogID) != m.logID {
		return nil, fmt.Errorf("%w: %s has a head of a log with another key (name another file with --latest-head)",
			node.ErrConfig, m.path)
	}
	return head, nil
}

// Save replaces the file. It returns after the file was synced to the disk.
func (m memory) Save(_ context.Context, head ct.TreeHead) error {
	if m.path == "" {
		return nil
	}
	content, err := json.Marshal(latestHead{m.logID[:], ct.NewHeadJSON(&head)})
	if err != nil {
		return fmt.Errorf("serve: the latest head: %w", err)
	}
	if err := blob.KeepFile(m.path, append(content, '\n')); err != nil {
		return fmt.Errorf("serve: the latest head: %w", err)
	}
	return nil
}
