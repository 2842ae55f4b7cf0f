// The versions are those of Debian 13 (deps/packages.txt), by which the log is built and tested; `make deps` fetches them.
module wagtenib

go 1.24

require (
	github.com/ThalesIgnite/crypto11 v1.2.5
	github.com/google/certificate-transparency-go v1.3.1
	github.com/lib/pq v1.10.9
	github.com/mattn/go-sqlite3 v1.14.27
	github.com/minio/minio-go/v7 v7.0.89
	github.com/prometheus/client_golang v1.21.1
	github.com/syndtr/goleveldb v1.0.1-0.20200815110645-5c35d600f0ca
	github.com/transparency-dev/merkle v0.0.2
	go.etcd.io/etcd/api/v3 v3.5.17
	go.etcd.io/etcd/client/v3 v3.5.17
	go.uber.org/zap v1.27.0
	golang.org/x/crypto v0.36.0
	golang.org/x/mod v0.22.0
	golang.org/x/sync v0.11.0
	golang.org/x/sys v0.31.0
	google.golang.org/grpc v1.69.4
)

require (
	github.com/beorn7/perks v1.0.1 // indirect
	github.com/cespare/xxhash/v2 v2.3.0 // indirect
	github.com/coreos/go-semver v0.3.1 // indirect
	github.com/coreos/go-systemd/v22 v22.5.0 // indirect
	github.com/dustin/go-humanize v1.0.1 // indirect
	github.com/go-ini/ini v1.67.0 // indirect
	github.com/go-logr/logr v1.4.2 // indirect
	github.com/gogo/protobuf v1.3.2 // indirect
	github.com/golang/protobuf v1.5.4 // indirect
	github.com/golang/snappy v0.0.2 // indirect
	github.com/google/uuid v1.6.0 // indirect
	github.com/klauspost/compress v1.18.0 // indirect
	github.com/klauspost/cpuid/v2 v2.2.10 // indirect
	github.com/miekg/pkcs11 v1.1.1 // indirect
	github.com/minio/crc64nvme v1.0.1 // indirect
	github.com/minio/md5-simd v1.1.2 // indirect
	github.com/munnerz/goautoneg v0.0.0-20191010083416-a7dc8b61c822 // indirect
	github.com/pkg/errors v0.9.1 // indirect
	github.com/prometheus/client_model v0.6.1 // indirect
	github.com/prometheus/common v0.62.0 // indirect
	github.com/prometheus/procfs v0.15.1 // indirect
	github.com/rs/xid v1.6.0 // indirect
	github.com/thales-e-security/pool v0.0.2 // indirect
	go.etcd.io/etcd/client/pkg/v3 v3.5.17 // indirect
	go.uber.org/atomic v1.11.0 // indirect
	go.uber.org/multierr v1.11.0 // indirect
	golang.org/x/net v0.37.0 // indirect
	golang.org/x/text v0.23.0 // indirect
	google.golang.org/genproto/googleapis/api v0.0.0-20241113202542-65e8d215514f // indirect
	google.golang.org/genproto/googleapis/rpc v0.0.0-20241209162323-e6fa225c2576 // indirect
	google.golang.org/protobuf v1.36.5 // indirect
	k8s.io/klog/v2 v2.130.1 // indirect
)

// Where modules above ask for a newer version than Debian 13 has, Debian's is taken, as Debian itself does.
replace (
	github.com/coreos/go-semver => github.com/coreos/go-semver v0.3.0
	github.com/miekg/pkcs11 => github.com/miekg/pkcs11 v1.0.3
	github.com/prometheus/client_model => github.com/prometheus/client_model v0.6.0
	go.etcd.io/etcd/api/v3 => go.etcd.io/etcd/api/v3 v3.5.16
	go.etcd.io/etcd/client/pkg/v3 => go.etcd.io/etcd/client/pkg/v3 v3.5.16
	go.etcd.io/etcd/client/v3 => go.etcd.io/etcd/client/v3 v3.5.16
	go.uber.org/multierr => go.uber.org/multierr v1.6.0
	go.uber.org/zap => go.uber.org/zap v1.26.0
	golang.org/x/crypto => golang.org/x/crypto v0.25.0
	golang.org/x/mod => golang.org/x/mod v0.19.0
	golang.org/x/net => golang.org/x/net v0.27.0
	golang.org/x/sync => golang.org/x/sync v0.7.0
	golang.org/x/sys => golang.org/x/sys v0.22.0
	golang.org/x/text => golang.org/x/text v0.22.0
	google.golang.org/grpc => google.golang.org/grpc v1.64.0
)
