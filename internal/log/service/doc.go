// Package service serves one log with a node. It implements log.Log, which internal/log/httpd calls. The
// node decides (internal/log/node). This package gives the node what it needs from the machine, and gives readers what they
// need from the log.
//
//   - service.go opens and ends the log, and submit.go takes submissions;
//   - reads.go and objects.go read heads and objects for clients, and compare each full tile with the tree;
//   - issuers.go stores the certificates of issuers, and remote.go asks witnesses for cosignatures;
//   - index.go checks that the index belongs to the log, finder.go looks entries up in it, and rebuild.go builds a lost
//     one again;
//   - clock.go, sources.go and day.go have the clocks, and memory.go the newest head that this machine accepted;
//   - counts.go counts for metrics;
//   - forward.go forwards submissions to the node that makes the steps.
package service
