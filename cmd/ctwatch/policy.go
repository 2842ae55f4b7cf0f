package main

import (
	"flag"
	"fmt"
	"os"

	"wagtenib/internal/audit"
	"wagtenib/internal/watch"
)

// policyFlags holds the values of the flags for what others say of a log: a policy of witnesses, and heads that they saw.
type policyFlags struct {
	file   string
	quorum int
	heads  string // a file, a folder or a URL; empty for none
}

func (p *policyFlags) define(flags *flag.FlagSet) {
	flags.StringVar(&p.file, "witnesses", "",
		"`file` with the verifier keys of witnesses, one a line. A tiled log whose head too few of them cosigned is "+
			"accused, and the head is not read")
	flags.IntVar(&p.quorum, "quorum", 0, "`number` of the witnesses that must have cosigned a head")
	flags.StringVar(&p.heads, "heads", "", "`file`, folder or URL with signed heads that others saw: checkpoints, or answers "+
		"to get-sth. Each is compared with what the log says, and read again after each --pause")
}

// policy returns the function that checks heads, or nil if there is no policy.
func (p *policyFlags) policy() (func(watch.Head) error, error) {
	if p.file == "" && p.quorum == 0 {
		return nil, nil
	}
	if p.file == "" {
		return nil, fmt.Errorf("%w: --quorum needs --witnesses", errUsage)
	}
	keys, err := os.ReadFile(p.file)
	if err != nil {
		return nil, fmt.Errorf("%w: --witnesses: %w", errUsage, err)
	}
	policy, err := audit.NewPolicy(keys, p.quorum)
	if err != nil {
		return nil, fmt.Errorf("%w: %w", errUsage, err)
	}
	return policy.Check, nil
}
