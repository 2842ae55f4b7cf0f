package sim_test

// mistakes are faults that were written down from the node's code only, before the other lists were read: in the order
// of calls, in what is checked, retried, remembered and compared.
var mistakes = []planted{
	{"a restored head is put before its objects", []edit{
		{"heads.go",
			"	for _, object := range resumed.Objects {\n" +
				"		if err := l.putRight(ctx, object.Name, object.Content); err != nil {\n" +
				"			return ct.SignedHead{}, fmt.Errorf(\"node: %w\", err)\n		}\n	}\n	head, err := l.headOf(ctx, k)\n" +
				"	if !errors.Is(err, blob.ErrAbsent) && !errors.Is(err, errOtherHead) {\n		return head, err\n	}\n",
			"	putObjects := func() (err error) {\n		for _, object := range resumed.Objects {\n" +
				"			err = errors.Join(err, l.putRight(ctx, object.Name, object.Content))\n		}\n		return err\n	}\n" +
				"	head, err := l.headOf(ctx, k)\n" +
				"	if !errors.Is(err, blob.ErrAbsent) && !errors.Is(err, errOtherHead) {\n" +
				"		return head, errors.Join(err, putObjects())\n	}\n",
		},
		{"heads.go", "	return head, nil\n}\n\n// putHead has", "	return head, putObjects()\n}\n\n// putHead has"},
	}},
	{"the lock says that a head is published before the checkpoint is there", []edit{
		{"heads.go",
			"	if err := l.putCheckpoint(ctx, head); err != nil {\n		return err\n	}\n	if published.Before",
			"	if published.Before",
		},
		{"heads.go",
			"	l.show(head, line)\n",
			"	if err := l.putCheckpoint(ctx, head); err != nil {\n		return err\n	}\n	l.show(head, line)\n",
		},
	}},
	{"a state counts as published before the lock says so", []edit{
		{"pass.go",
			"	if err := p.raise(ctx, blob.Published{}, head, p.from.line); err != nil {",
			"	p.last.published = p.from.line\n" +
				"	if err := p.raise(ctx, blob.Published{}, head, p.from.line); err != nil {",
		},
	}},
	{"a state counts as accepted before the memory has it", []edit{
		{"seen.go",
			"	if err := l.config.Machine.Memory.Save(ctx, k.TreeHead); err != nil {",
			"	l.seen.accepted = *k\n	if err := l.config.Machine.Memory.Save(ctx, k.TreeHead); err != nil {",
		},
	}},
	{"the edge is kept before the lock decides", []edit{
		{"swap.go", "	p.keepEdge()\n", ""},
		{"swap.go", "	began, won := ", "	p.keepEdge()\n	began, won := "},
	}},
	{"the newest head counts as cosigned before the witnesses answer", []edit{
		{"witnesses.go",
			"	if _, err := l.gather(ctx, &asking{k: k, note: ownNote(head.Signed),",
			"	l.seen.isVouched = true\n	if _, err := l.gather(ctx, &asking{k: k, note: ownNote(head.Signed),",
		},
	}},
	{"a request is looked up under a head that is looked at after the index", []edit{
		{"requests.go", "	place, ok := places[r.identity]\n", "	now = n.Snapshot()\n	place, ok := places[r.identity]\n"},
	}},
	{"a state is restored that is not the lock's any more", []edit{
		{"heads.go", "	if newest.text != k.text {\n		return ct.SignedHead{}, errMoves\n	}\n	l.edge", "	_ = newest\n	l.edge"},
	}},
	{"answered submissions are given back, too", []edit{
		{"pool.go", "		if !t.isAnswered() {\n			left", "		{\n			left"},
	}},
	{"a start that is refused looks at the lock only again", []edit{
		{"start.go",
			"	if last == nil || f.Signed == nil {",
			"	if last == nil || true {\n		return false, nil\n	}\n	if f.Signed == nil {",
		},
	}},
	{"a lost swap of the checkpoint is tried again from the same head", []edit{
		{"checkpoint.go", "		l.last.checkpoint, stored = nil, nil\n", ""},
	}},
	{"a swap of unknown outcome counts as lost", []edit{
		{"swap.go",
			"		if errors.Is(err, blob.ErrLost) {\n			return false, nil",
			"		if errors.Is(err, blob.ErrLost) || errors.Is(err, blob.ErrUnknown) {\n			return false, nil",
		},
	}},
	{"each reading of a text counts as its first", []edit{
		{"loop.go", "	if text != before.text {\n", "	if text != \"\" {\n"},
	}},
	{"the signer is asked again by the paths in the first head", []edit{
		{"proofs.go", "paths(ctx, indexes, *last, read)", "paths(ctx, indexes, head, read)"},
	}},
	{"an older head that a reader read replaces a later one", []edit{
		{"newest.go",
			"		if before != nil && !isBefore(*before, head) || n.read.CompareAndSwap(before, &head) {",
			"		if n.read.CompareAndSwap(before, &head) {",
		},
	}},
	{"the newest entry counts as missing if it cannot be read", []edit{
		{"index.go",
			"	if errors.Is(err, ErrDamaged) || errors.Is(err, blob.ErrAbsent) {\n		return nil, nil\n	}\n" +
				"	if err != nil {\n		return nil, fmt.Errorf(\"node: the newest entry: %w\", err)\n	}\n	return leaf, nil",
			"	if err != nil {\n		return nil, nil\n	}\n	return leaf, nil",
		},
	}},
	{"another content under a head's name counts as put", []edit{
		{"heads.go",
			"	if errors.Is(err, blob.ErrOther) {\n		return l.headOf(ctx, k)\n	}",
			"	if errors.Is(err, blob.ErrOther) {\n		return made, nil\n	}",
		},
	}},
	{"a lost swap of the checkpoint counts as done", []edit{
		{"checkpoint.go",
			"		if err == nil {\n			l.last.checkpoint = &head",
			"		if err == nil || errors.Is(err, blob.ErrLost) {\n			l.last.checkpoint = &head",
		},
	}},
	{"the rows behind a repeated entry of a batch are forgotten", []edit{
		{"pass.go",
			"		if r.LeafIndex != next {\n			continue\n		}",
			"		if r.LeafIndex != p.from.TreeSize+uint64(i) {\n			continue\n		}",
		},
	}},
	{"a witness that cosigned this very head saw more", []edit{
		{"witnesses.go", "	case last > size:", "	case last >= size:"},
	}},
	{"one entry more than those that are remembered counts as remembered", []edit{
		{"known.go", "		if !t.isAbsent || t.size < from {", "		if !t.isAbsent || t.size+1 < from {"},
	}},
	{"the checkpoint is replaced by an equal one", []edit{
		{"checkpoint.go",
			"		if stored.Signed != nil && !isBefore(*stored, head) {",
			"		if stored.Signed != nil && isBefore(head, *stored) {",
		},
	}},
	{"the edge has its tiles in the order in which they are answered", []edit{
		{"pass.go", "	read := p.reading(nil)\n	for at", "	read, answers := p.reading(nil), 0\n	for at"},
		{"pass.go",
			"			contents[at], err = read(ctx, name)\n			return err",
			"			content, err := read(ctx, name)\n			contents[answers] = content\n			answers++\n			return err",
		},
	}},
	{"the signatures of a step go by the places in its batch", []edit{
		{"proofs.go",
			"	for i, r := range receipts {\n		signatures[i] = signed[r.LeafIndex-first]",
			"	for i := range receipts {\n		signatures[i] = signed[min(i, len(signed)-1)]",
		},
	}},
}
