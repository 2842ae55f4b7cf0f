package httpd

import (
	"context"
	"errors"
	"net/http"
	"net/netip"

	"wagtenib/internal/ct"
	"wagtenib/internal/log"
)

// Forwarder forwards submissions to the node of the log that makes the steps.
type Forwarder interface {
	// Forward forwards a client's request with this body, and reports whether it was answered. If not, nothing was
	// written. An error says that the other node does not answer, so this one must take the submission itself.
	Forward(w http.ResponseWriter, r *http.Request, client netip.Addr, body []byte) (isAnswered bool, err error)
}

// maxForwards is the maximum number of times that a submission is tried again, at another node or here, because the
// nodes changed which of them makes the steps.
const maxForwards = 3

// submit submits an entry to this node or another one, and answers the client. The node that takes the submission must
// check its chain, because the holder of a node's certificate may submit and do nothing else. So the node that forwards
// it checks nothing.
func (f *Front) submit(ctx context.Context, w http.ResponseWriter, r *http.Request, client netip.Addr, body []byte,
	check chainCheck) error {
	var entry *ct.Entry
	for tries := 0; ; tries++ {
		if f.options.Forward == nil || tries == maxForwards {
			ctx = log.Forwarded(ctx)
		}
		if !log.IsForwarded(ctx) {
			isAnswered, err := f.options.Forward.Forward(w, r.WithContext(ctx), client, body)
			if isAnswered {
				return nil
			}
			if ctx.Err() != nil {
				return ctx.Err()
			}
			if err != nil {
				ctx = log.Forwarded(ctx)
			}
		}
		if entry == nil {
			var err error
			if entry, err = f.checked(ctx, body, check); err != nil {
				return err
			}
		}
		if log.IsForwarded(ctx) {
			// The entry has a copy of the bytes that it needs.
			body = nil
		}
		sct, err := f.log.Submit(ctx, *entry)
		if errors.Is(err, log.ErrElsewhere) && tries < maxForwards {
			continue
		}
		if err != nil {
			return err
		}
		w.Header().Set("Cache-Control", "no-store")
		writeJSON(w, http.StatusOK, sct)
		return nil
	}
}

// nodeKey is in the context of a request that another node forwarded. Its client was counted there.
type nodeKey struct{}

// Nodes returns the handler of the submissions that other nodes forward. They are never forwarded again. Its listener
// must let nobody in except the nodes of the log.
func (f *Front) Nodes() http.Handler {
	return http.HandlerFunc(func(w http.ResponseWriter, r *http.Request) {
		if callOf(r).costs != aSubmission {
			http.Error(w, "this address is for submissions that other nodes forward", http.StatusNotFound)
			return
		}
		ctx := context.WithValue(log.Forwarded(r.Context()), nodeKey{}, true)
		f.ServeHTTP(w, r.WithContext(ctx))
	})
}

// isUncounted reports whether a request counts for no client: an operator sent it, or another node forwarded it.
func isUncounted(ctx context.Context) bool {
	return ctx.Value(operatorKey{}) != nil || ctx.Value(nodeKey{}) != nil
}
