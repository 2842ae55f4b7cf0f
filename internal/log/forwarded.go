package log

import "context"

// forwardedKey is in the context of a submission that must not be forwarded.
type forwardedKey struct{}

// Forwarded returns the context of a submission that must not be forwarded, because another node forwarded it, or
// because the other node does not answer. So no submission goes in a circle.
func Forwarded(ctx context.Context) context.Context {
	return context.WithValue(ctx, forwardedKey{}, true)
}

// IsForwarded reports whether a submission must not be forwarded.
func IsForwarded(ctx context.Context) bool { return ctx.Value(forwardedKey{}) != nil }
