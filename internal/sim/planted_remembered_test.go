package sim_test

// remembered are faults in what a node takes from its own last steps in place of a call to a store.
var remembered = []planted{
	{"the identities of the last step are not remembered", []edit{
		{"known.go",
			"	r.text = to.text\n",
			"	clear(one.identities)\n	r.text = to.text\n",
		},
	}},
	{"the identities of a step are forgotten after the next one", []edit{
		{"known.go",
			"	r.text = to.text\n",
			"	for _, old := range r.steps {\n		clear(old.identities)\n	}\n	r.text = to.text\n",
		},
	}},
	{"steps are forgotten, and the rest counts as all since the lookup", []edit{
		{"known.go",
			"		if !t.isAbsent || t.size < from {",
			"		if !t.isAbsent || t.size < from && false {",
		},
	}},
	{"a submission that was not looked up is taken for absent", []edit{
		{"known.go",
			"		if !t.isAbsent || t.size < from {",
			"		if t.isAbsent && t.size < from {",
		},
	}},
	{"identities are remembered for another node's state, too", []edit{
		{"known.go",
			"	if r.text == k.text {\n		from",
			"	if len(r.steps) > 0 {\n		from",
		},
		{"known.go", "	if r.text != k.text {", "	if false {"},
	}},
	{"the lock is read only before a node's first step", []edit{
		{"loop.go",
			"	l.seen.isMade = false\n	if isMade && !l.pool.isEmpty() && l.Fault() == nil &&\n" +
				"		l.config.Machine.Clock.Elapsed()-l.seen.heard <= maxUnheard {",
			"	if isMade {",
		},
	}},
	{"the lock is not read if no submission waits", []edit{
		{"loop.go",
			"	l.seen.isMade = false\n	if isMade && !l.pool.isEmpty() && l.Fault() == nil &&\n" +
				"		l.config.Machine.Clock.Elapsed()-l.seen.heard <= maxUnheard {",
			"	l.seen.isMade = isMade && l.pool.isEmpty()\n	if isMade && l.Fault() == nil {",
		},
	}},
	{"a lost swap from a remembered text counts as won", []edit{
		{"loop.go", "	recent recent\n", "	recent recent\n	remembers bool\n"},
		{"loop.go", "	isMade := l.seen.isMade\n", "	isMade := l.seen.isMade\n	l.remembers = false\n"},
		{"loop.go",
			"		return l.seen.newest, nil\n	}\n	return l.learn(ctx)",
			"		l.remembers = true\n		return l.seen.newest, nil\n	}\n	return l.learn(ctx)",
		},
		{"swap.go", "	if !won {", "	if !won && !p.remembers {"},
	}},
	{"the heads are not listed beside a swap", []edit{
		{"swap.go", "		h.names, h.err = h.listHeads(ctx, h.from)\n", ""},
	}},
	{"a list of the heads is good for an hour", []edit{
		{"swap.go", "const maxUnlisted = 100 * time.Millisecond", "const maxUnlisted = time.Hour"},
	}},
}
