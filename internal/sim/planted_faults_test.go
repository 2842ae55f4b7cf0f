package sim_test

// all are faults in the order of the node, in what it checks and in what it remembers.
var all = []planted{
	{"nothing is staged", []edit{
		{"pass.go",
			"	if err := p.config.Stores.Objects.Put(ctx, p.command.New.Batch, p.made.content); err != nil {",
			"	if err := error(nil); err != nil {",
		},
	}},
	{"the swap comes before the staging", []edit{
		{"pass.go", "outcome, err = p.stage(ctx)", "outcome = decider.Done()"},
		{"swap.go",
			"	p.last.decided = true\n	if !won {",
			"	if won {\n		_ = p.config.Stores.Objects.Put(ctx, p.command.New.Batch, p.made.content)\n	}\n" +
				"	p.last.decided = true\n	if !won {",
		},
	}},
	{"an error of the staging is ignored", []edit{
		{"pass.go",
			"		return nil, fmt.Errorf(\"node: the staged batch: %w\", err)\n	}\n	return decider.Done(), nil",
			"		_ = err\n	}\n	return decider.Done(), nil",
		},
	}},
	{"a lost swap counts as won", []edit{
		{"swap.go",
			"			return false, nil\n		}\n		if errors.Is(err, blob.ErrUnknown) {",
			"			return true, nil\n		}\n		if errors.Is(err, blob.ErrUnknown) {",
		},
	}},
	{"a swap of unknown outcome counts as won", []edit{
		{"swap.go",
			"		if err == nil {\n			return true, nil\n		}",
			"		if err == nil || errors.Is(err, blob.ErrUnknown) {\n			return true, nil\n		}",
		},
	}},
	{"a state is not compared after the swap", []edit{
		{"swap.go", "	if err := p.descends(ctx, k, p.made.objects, p.heads.after); err != nil {", "	if false {"},
	}},
	{"a tile is not put", []edit{
		{"pass.go", "range p.made.objects {\n		calls", "range p.made.objects[1:] {\n		calls"},
	}},
	{"an error of a tile's put is ignored", []edit{
		{"pass.go",
			"				return fmt.Errorf(\"%w: %w\", ErrDamaged, err)\n			}\n			return err",
			"				return fmt.Errorf(\"%w: %w\", ErrDamaged, err)\n			}\n			return nil",
		},
	}},
	{"the head is put before the tiles", []edit{
		{"pass.go",
			"	if err := errors.Join(p.checkState(), p.checkObjects()); err != nil {",
			"	if _, err := p.publish(ctx); err != nil {",
		},
	}},
	{"no place is added", []edit{
		{"pass.go", "			return p.index(ctx)\n", "			return nil\n"},
	}},
	{"no leaf is added", []edit{
		{"pass.go", "Leaf: blob.Identity(tlog.RecordHash(r.Signed)),", "Leaf: t.identity,"},
		{"pass.go", "	\"golang.org/x/mod/sumdb/tlog\"\n\n", ""},
		{"start.go", "	isKnown = isKnown && at.Index == index && len(places) > 0", "	_, isKnown = at, len(places) > 0"},
	}},
	{"a resumed step's leaves are not added", []edit{
		{"names.go", "Leaf: blob.Identity(l.Hash()), Place:", "Place:"},
		{"start.go", "	isKnown = isKnown && at.Index == index && len(places) > 0", "	_, isKnown = at, len(places) > 0"},
	}},
	{"a node that ends forgets its queue", []edit{
		{"pool.go", "	return p.ended && p.open == 0", "	return true"},
	}},
	{"a wrong place is not replaced", []edit{
		{"pass.go", "		if t.misplaced {", "		if false {"},
	}},
	{"a resumed step's wrong places stay", []edit{
		{"index.go", "		if !p.made.isNew {", "		if false {"},
	}},
	{"a place is compared with no entry", []edit{
		{"index.go",
			"	return identity(leaf.Type, leaf.IssuerKeyHash, leaf.Certificate) == of.identity && leaf.Timestamp == " +
				"of.Timestamp, nil",
			"	return leaf != nil, nil",
		},
	}},
	{"a head is published without cosignatures", []edit{
		{"witnesses.go", "	head.Signed = append(bytes.Clone(head.Signed), lines...)", "	_ = lines"},
	}},
	{"one witness too few is enough", []edit{
		{"witnesses.go", "min: quorums.Publish}", "min: quorums.Publish - 1}"},
	}},
	{"too few cosignatures do not stop a head", []edit{
		{"witnesses.go",
			"	case a.given >= a.min && (a.ahead == nil || !a.isWhole):",
			"	case a.ahead == nil || !a.isWhole:",
		},
	}},
	{"the newest head is not cosigned at a start", []edit{
		{"witnesses.go",
			"	if len(l.config.Witnesses.All) == 0 || l.seen.isVouched || k.IsBegin() {",
			"	if true {",
		},
	}},
	{"a witness that saw more does not stop a start", []edit{
		{"witnesses.go",
			"	case a.given >= a.min && (a.ahead == nil || !a.isWhole):",
			"	case a.given >= a.min || a.isWhole:",
		},
	}},
	{"one witness too few is enough at a start", []edit{
		{"witnesses.go", "min: l.config.Witnesses.Quorums.Start,", "min: l.config.Witnesses.Quorums.Start - 1,"},
		{"witnesses.go",
			"	case a.given >= a.min && (a.ahead == nil || !a.isWhole):",
			"	case a.given >= a.min:",
		},
	}},
	{"the first head of a log is cosigned as any other", []edit{
		{"witnesses.go", "	if !l.seen.isVouched {\n		a.min", "	if false {\n		a.min"},
	}},
	{"a cosignature is not checked", []edit{
		{"witnesses.go",
			"	if err != nil || opened.Text != text || len(opened.Sigs) != 1 {",
			"	if err != nil {\n		return answer, nil\n	}\n	if false {",
		},
	}},
	{"what a witness answers is not asked for again", []edit{
		{"witnesses.go", "	for range maxAsked {\n		r :=", "	for range 1 {\n		r :="},
		{"witnesses.go", "			l.witnessed[which] = old\n", ""},
	}},
	{"a partial tile goes at once", []edit{
		{"log/node/janitor/pass.go", "newest.Head, now, keep.Tiles)", "newest.Head, now, 0)"},
	}},
	{"the partial tiles of the newest head's full ones go", []edit{
		{"log/node/janitor/pass.go",
			"		for full := tiles.Count(at-1, j.tiles.head.TreeSize); left",
			"		for full := tiles.Count(at-1, newest.Head.TreeSize); left",
		},
	}},
	{"a full tile is not compared", []edit{
		{"log/node/janitor/pass.go",
			"	if err := j.whole(ctx, full, newest); err != nil {",
			"	if err := error(nil); err != nil {",
		},
	}},
	{"an old head goes at once", []edit{
		{"log/node/janitor/pass.go", "newest.Head, now, keep.Heads)", "newest.Head, now, 0)"},
	}},
	{"heads are thinned at once", []edit{
		{"log/node/janitor/pass.go", "newest.Head, now, keep.Thin)", "newest.Head, now, 0)"},
	}},
	{"all but the newest heads are thinned", []edit{
		{"log/node/janitor/heads.go", "one/apart == two/apart", "one < two"},
	}},
	{"the decider is not asked for a staged batch", []edit{
		{"log/node/janitor/pass.go",
			"		if next.Do != decider.Delete || next.Batch != name {",
			"		if next == nil {",
		},
	}},
	{"no partial tile is deleted", []edit{
		{"log/node/janitor/pass.go", "	if err != nil || len(partials) == 0 {", "	if true {"},
	}},
	{"no head is deleted", []edit{
		{"log/node/janitor/heads.go", "		if name >= old && !(isThin", "		if name >= old || !(isThin"},
		{"log/node/janitor/heads.go", "j.stays(first)", "name == first"},
	}},
	{"heads are thinned long after the newest one was looked for", []edit{
		{"log/node/janitor/heads.go", "{ return j.config.Keep.Heads - j.config.Keep.Call }", "{ return time.Hour }"},
	}},
	{"heads are thinned by what the node knows", []edit{
		{"log/node/janitor/heads.go", "	later, err := j.list(ctx, headsPrefix, newest)", "	later, err := []string{}, error(nil)"},
	}},
	{"no staged batch is listed", []edit{
		{"log/node/janitor/pass.go", "	if newest.Stepping == nil || now < j.staged.due {", "	if true {"},
	}},
	{"a deleted partial tile is damage", []edit{
		{"proofs.go",
			"	return tiles.Stored(func(ctx context.Context, name string) ([]byte, error) {\n" +
				"		return n.config.Stores.Objects.Get(ctx, name, blob.MaxObject)\n	})(ctx, name)",
			"	content, err := n.config.Stores.Objects.Get(ctx, name, blob.MaxObject)\n	if err != nil {\n" +
				"		err = fmt.Errorf(\"%w: %v\", ErrDamaged, err)\n	}\n	return content, err",
		},
	}},
	{"the memory keeps nothing", []edit{
		{"seen.go",
			"	if err := l.config.Machine.Memory.Save(ctx, k.TreeHead); err != nil {",
			"	if err := error(nil); err != nil {",
		},
	}},
	{"the seen head is forgotten", []edit{
		{"seen.go", "	l.seen.accepted = *k", "	_ = k"},
	}},
	{"the store's heads are not compared", []edit{
		{"seen.go",
			"	between, err := l.headsUpTo(ctx, k, isNext, heads)",
			"	_, _, between, err := isNext, heads, \"\", error(nil)",
		},
	}},
	{"a state need not go on from the accepted one", []edit{
		{"seen.go", "	if err := l.extends(ctx, k, accepted.TreeHead, objects); err != nil || between == \"\" {", "	if true {"},
	}},
	{"nothing is compared at all", []edit{
		{"seen.go", "	if l.isAccepted(k) {", "	if true {"},
		{"swap.go", "	if err := p.descends(ctx, k, p.made.objects, p.heads.after); err != nil {", "	if false {"},
	}},
	{"an older text of the lock is taken", []edit{
		{"loop.go", "		if err := l.continues(k); err != nil {", "		if err := error(nil); err != nil {"},
	}},
	{"a text that was replaced is taken again", []edit{
		{"loop.go", "	if text == l.seen.left {", "	if false {"},
	}},
	{"an older text is taken and nothing is compared", []edit{
		{"loop.go", "		if err := l.continues(k); err != nil {", "		if err := error(nil); err != nil {"},
		{"seen.go", "	if l.isAccepted(k) {", "	if true {"},
		{"swap.go", "	if err := p.descends(ctx, k, p.made.objects, p.heads.after); err != nil {", "	if false {"},
	}},
	{"a node that was away does not look back", []edit{
		{"loop.go", "	if l.config.Machine.Clock.Elapsed()-l.seen.heard > maxUnheard {", "	if false {"},
	}},
	{"a lock that is gone is made again", []edit{
		{"start.go", "		return false, refused(refusal, f)", "		return false, l.create(ctx)"},
	}},
	{"a start is never refused", []edit{
		{"start.go",
			"	if errors.As(err, &refusal) {",
			"	if errors.As(err, &refusal) && f.k != nil {\n		err = nil\n	} else if errors.As(err, &refusal) {",
		},
	}},
	{"the head is not put", []edit{
		{"heads.go",
			"		return l.config.Stores.Objects.Put(ctx, headName(k.TreeSize, k.Timestamp), made.Signed)",
			"		return nil",
		},
	}},
	{"nothing says that the head is published", []edit{
		{"heads.go",
			"		if err := l.config.Stores.Lock.Raise(ctx, publishedBy(head.TreeHead)); err != nil {",
			"		if err := error(nil); err != nil {",
		},
	}},
	{"a head's signature is not checked", []edit{
		{"heads.go", "foreign != nil {", "foreign != nil && false {"},
		{"heads.go",
			"	head, err := ct.OpenNote(content, n.verifier)\n",
			"	head, err := ct.OpenNote(content, uncheckedIn(content, n.verifier))\n",
		},
		{"heads.go",
			"	if err != nil || !strings.HasPrefix(lines, \"— \"+n.config.Origin+\" \") {",
			"	if err != nil || lines == \"\" || !strings.HasPrefix(string(content), n.config.Origin) {",
		},
		{"heads.go",
			"// parseNote reads a head's note.",
			"type unchecked struct {\n	note.Verifier\n	name string\n	id   uint32\n}\n\n" +
				"func (u unchecked) Name() string { return u.name }\n\n" +
				"func (u unchecked) KeyHash() uint32 { return u.id }\n\n" +
				"func (unchecked) Verify(msg, sig []byte) bool { return true }\n\n" +
				"func uncheckedIn(content []byte, of note.Verifier) note.Verifier {\n" +
				"	var unverified *note.UnverifiedNoteError\n" +
				"	if _, err := note.Open(content, nil); errors.As(err, &unverified) {\n" +
				"		first := unverified.Note.UnverifiedSigs[0]\n" +
				"		return unchecked{of, first.Name, first.Hash}\n	}\n	return of\n}\n\n" +
				"// parseNote reads a head's note.",
		},
	}},
	{"a head is not compared with its state", []edit{
		{"heads.go", "	if head.TreeSize != k.TreeSize || head.Timestamp != k.Timestamp {", "	if false {"},
		{"heads.go", "	if head.Root != k.Root {", "	if false {"},
	}},
	{"a reader gets the head that the node knows", []edit{
		{"newest.go", "		if err != nil && seen != nil {", "		if seen != nil {"},
	}},
	{"a reader gets a head of another name", []edit{
		{"newest.go", "	if headName(head.TreeSize, head.Timestamp) != name {", "	if false {"},
	}},
	{"a reader gets a head that is not published yet", []edit{
		{"newest.go", "	name := headName(published.Size, published.Timestamp)\n",
			"	name := headName(published.Size, published.Timestamp)\n" +
				"	if names, err := n.config.Stores.Objects.List(ctx, headsPrefix, name, 1); err == nil && len(names) > 0 {\n" +
				"		name = names[0]\n	}\n"},
	}},
	{"all in a batch get the first one's receipt", []edit{
		{"pass.go",
			"		r := p.made.receipts[i]\n		p.pool",
			"		r := p.made.receipts[0*i]\n		p.pool",
		},
		{"pass.go",
			"Answer{SCT: p.sct(r.LeafIndex, r.Timestamp, p.made.signatures[i])}",
			"Answer{SCT: p.sct(r.LeafIndex, r.Timestamp, p.made.signatures[0])}",
		},
	}},
	{"the answer comes before the head", []edit{
		{"pass.go",
			"	head, err := p.putHead(ctx, p.from, p.made.checkpoint, p.made.objects, p.sign)",
			"	if len(p.batch) > 0 {\n" +
				"		if _, err := p.signedHead(ctx, p.from, p.made.checkpoint, p.made.objects); err != nil {\n" +
				"			return nil, err\n		}\n		if _, err := p.answer(ctx); err != nil {\n			return nil, err\n		}\n	}\n" +
				"	head, err := p.putHead(ctx, p.from, p.made.checkpoint, p.made.objects, p.sign)",
		},
	}},
	{"a failed round forgets its batch", []edit{
		{"loop.go", "	defer func() { l.pool.giveBack(batch) }()", "	defer func() {}()"},
	}},
	{"a failed round answers its batch with nothing", []edit{
		{"loop.go",
			"	defer func() { l.pool.giveBack(batch) }()",
			"	defer func() {\n		for _, t := range batch {\n			l.pool.resolve(t, Answer{})\n		}\n	}()",
		},
	}},
	{"the round does not ask the index", []edit{
		{"known.go",
			"		if ok && place.Index < k.TreeSize && (t.wrong == nil || *t.wrong != place) {",
			"		if ok && place.Index > 1<<50 {",
		},
	}},
	{"a submission is not looked up", []edit{
		{"requests.go", "	if now == nil || now.TreeSize == 0 {", "	if true {"},
	}},
	{"the index is believed", []edit{
		{"requests.go",
			"	if identity(leaf.Type, leaf.IssuerKeyHash, leaf.Certificate) != r.identity || leaf.Timestamp != " +
				"place.Timestamp {\n		return nil, nil\n	}",
			"",
		},
		{"requests.go",
			"	if errors.Is(err, step.NoClaim) {\n		return nil, nil\n	}",
			"	if errors.Is(err, step.NoClaim) {\n" +
				"		return &wagtenib.Receipt{LeafIndex: place.Index, Timestamp: place.Timestamp, Signed: leaf.Input()}, nil\n" +
				"	}",
		},
	}},
	{"the index may lack the newest entry", []edit{
		{"start.go",
			"	isKnown = isKnown && at.Index == index && len(places) > 0\n",
			"	isKnown = len(places) < 2 && at.Index <= index\n",
		},
	}},
	{"the clock is believed", []edit{
		{"loop.go",
			"	if off := now.Sub(t.read) - (elapsed - t.since); !isVouched && (off > t.maxSkew || -off > " +
				"t.maxSkew) {",
			"	if off := 0 * time.Second; off > t.maxSkew {",
		},
	}},
	{"a clock that is behind stops the log", []edit{
		{"loop.go",
			"	now = max(uint64(max(t.of.Now().UnixMilli(), 1)), newest+1)",
			"	now = uint64(max(t.of.Now().UnixMilli(), 1))",
		},
	}},
	{"a staged batch is deleted without asking", []edit{
		{"swap.go",
			"	p.keepEdge()\n",
			"	p.keepEdge()\n	_ = p.config.Stores.Objects.Delete(ctx, p.command.New.Batch)\n",
		},
	}},
	{"a step goes on from an unpublished state", []edit{
		{"heads.go",
			"	if published.Size < k.TreeSize {\n		return false, nil\n	}",
			"	if published.Size < k.TreeSize {\n		return true, nil\n	}",
		},
	}},
	{"a call has no time limit", []edit{
		{"calls.go", "	ctx, cancel := l.clock.Within(ctx, l.long)\n	defer cancel()\n", ""},
	}},
	{"the signer's refusal is retried for ever", []edit{
		{"heads.go",
			"		if try+1 == maxAsked || !isOlder && !l.moved(ctx, lastHead, err) {",
			"		if _ = isOlder; !errors.Is(err, signer.ErrRefused) {",
		},
	}},
	{"the guard approves each head", []edit{
		{"sim/guard.go",
			"	next, err := state.After(head, consistency, head.Timestamp)\n",
			"	next, err := state.After(head, consistency, head.Timestamp)\n	if err != nil {\n" +
				"		if state, err = signer.ReadState(signer.NoHead); err == nil {\n" +
				"			if state, err = state.Begin(head); err == nil {\n" +
				"				next, err = state.After(head, nil, head.Timestamp)\n			}\n		}\n	}\n",
		},
		{"sim/guard.go", "		case old.Text():\n", "		default:\n"},
	}},
	{"the guard approves each head, and a state need not go on from the accepted one", []edit{
		{"sim/guard.go",
			"	next, err := state.After(head, consistency, head.Timestamp)\n",
			"	next, err := state.After(head, consistency, head.Timestamp)\n	if err != nil {\n" +
				"		if state, err = signer.ReadState(signer.NoHead); err == nil {\n" +
				"			if state, err = state.Begin(head); err == nil {\n" +
				"				next, err = state.After(head, nil, head.Timestamp)\n			}\n		}\n	}\n",
		},
		{"sim/guard.go", "		case old.Text():\n", "		default:\n"},
		{"seen.go", "	if err := l.extends(ctx, k, accepted.TreeHead, objects); err != nil || between == \"\" {", "	if true {"},
	}},
	{"the seen head is forgotten, and the store's heads are not compared", []edit{
		{"seen.go", "	l.seen.accepted = *k", "	_ = k"},
		{"seen.go",
			"	between, err := l.headsUpTo(ctx, k, isNext, heads)",
			"	_, _, between, err := isNext, heads, \"\", error(nil)",
		},
	}},
	{"an older text is taken, and a state need not go on from the accepted one", []edit{
		{"seen.go", "	if err := l.extends(ctx, k, accepted.TreeHead, objects); err != nil || between == \"\" {", "	if true {"},
		{"loop.go", "		if err := l.continues(k); err != nil {", "		if err := error(nil); err != nil {"},
	}},
	{"a lock that is gone is made again, the engine lets it, and a start is never refused", []edit{
		{"start.go",
			"	if errors.As(err, &refusal) {",
			"	if errors.As(err, &refusal) && f.k != nil {\n		err = nil\n	} else if errors.As(err, &refusal) {",
		},
		{"start.go", "		return false, refused(refusal, f)", "		return false, l.create(ctx)"},
		{"sim/stores.go", "		if s.created {", "		if s.created && s.text != \"\" {"},
	}},
	{"a node that was away does not look back, and a state is not compared after the swap", []edit{
		{"loop.go", "	if l.config.Machine.Clock.Elapsed()-l.seen.heard > maxUnheard {", "	if false {"},
		{"swap.go", "	if err := p.descends(ctx, k, p.made.objects, p.heads.after); err != nil {", "	if false {"},
	}},
	{"a start is never refused, and nothing is compared at all", []edit{
		{"start.go",
			"	if errors.As(err, &refusal) {",
			"	if errors.As(err, &refusal) && f.k != nil {\n		err = nil\n	} else if errors.As(err, &refusal) {",
		},
		{"seen.go", "	if l.isAccepted(k) {", "	if true {"},
		{"swap.go", "	if err := p.descends(ctx, k, p.made.objects, p.heads.after); err != nil {", "	if false {"},
	}},
	{"an older checkpoint wins", []edit{
		{"checkpoint.go", "		if stored.Signed != nil && !isBefore(*stored, head) {", "		if false {"},
	}},
	{"the checkpoint is put before the tiles", []edit{
		{"pass.go",
			"	if err := errors.Join(p.checkState(), p.checkObjects()); err != nil {",
			"	if head, err := p.signedHead(ctx, p.from, p.made.checkpoint, p.made.objects); err == nil {\n" +
				"		if err := p.putCheckpoint(ctx, head); err != nil {\n			return nil, err\n		}\n	}\n" +
				"	if err := errors.Join(p.checkState(), p.checkObjects()); err != nil {",
		},
	}},
	{"a restored object is not put", []edit{
		{"staged.go",
			"	if err := l.config.Stores.Objects.Put(ctx, name, content); err != nil {",
			"	if err := error(nil); err != nil {",
		},
	}},
	{"a restored head replaces the one that another node restored", []edit{
		{"heads.go",
			"		if !errors.Is(wrong, errOtherHead) {\n			return stored, wrong\n		}\n",
			"		_, _ = stored, wrong\n",
		},
	}},
}
