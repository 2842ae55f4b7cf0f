// Package sim runs up to three nodes of a log (internal/log/node) in one process, in virtual time, from a seed. Its
// judge looks at each object when it is put and at each answer when it is given.
//
// README.md says how to read a history that failed, and how to add a fault.
package sim
