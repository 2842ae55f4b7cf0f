// Package node is one node of a log: a plain loop in one goroutine, over small interfaces, with the proved decisions in
// between. Package service serves a log out of it.
//
// A step goes in this order, which keeps a log one list of entries, whichever node dies at whichever call. The proved
// decider says the order (docs/NODE.md); the loop carries it out.
//
//  1. The newest state is published, by whichever node: its objects and its head are in the store, and its entries in
//     the index.
//  2. The proved step is made from the newest state, over the tiles of the edge.
//  3. The step's output is staged under a name of its own.
//  4. The lock is swapped from the newest state to the step's. This is the one decision.
//  5. The objects are put under their public names, the entries are added to the index, and the machine's memory keeps
//     the state.
//  6. The head is signed, and cosigned by enough witnesses if the log has any. The timestamps are signed while it is
//     put. Then the lock says that it is published.
//  7. The waiting submissions are answered.
//
// Any node may do again what comes after 4, from the staged batch, with the same outcome.
//
// # How to use it
//
// Start returns a Node and a Loop, or refuses. Run of the Loop must be called once, in one goroutine. A request calls
// Request, then Find and Claim (or Lookup, which calls both), and if these return nothing Enqueue; after an Answer that
// is Known it calls Lookup again. Readers call Snapshot.
//
// # In which order to read it
//
// README.md draws the life of a submission through these files.
//
//  1. node.go has the interfaces, and start.go says from which state a node continues.
//  2. loop.go has the loop and its rounds, and pass.go, staged.go and swap.go carry out each command.
//  3. seen.go refuses a lock that was rolled back. heads.go, witnesses.go and proofs.go publish, and index.go adds to
//     the index.
//  4. requests.go answers submissions that the log has already, pool.go holds those that wait, and known.go finds those
//     that came into the log meanwhile.
package node
