# Sourced by the scripts that run Knot or NSD as a secondary of example.test.

# Writes Knot's configuration: FOLDER (which is made), the port that it listens on, and that of its primary on 127.0.0.1.
knotd_secondary() {
    mkdir "$1"
    cat >"$1/knotd.conf" <<end
server:
    rundir: "$1"
    listen: 127.0.0.1@$2
    udp-workers: 1
    tcp-workers: 1
database:
    storage: "$1"
remote:
  - id: primary
    address: 127.0.0.1@$3
acl:
  - id: readers
    address: 127.0.0.1
    action: transfer
zone:
  - domain: example.test.
    storage: "$1"
    file: zone
    zonefile-sync: -1
    master: primary
    acl: readers
    refresh-min-interval: 2
    refresh-max-interval: 2
    retry-min-interval: 2
    retry-max-interval: 2
log:
  - target: stderr
    any: info
end
}

# Writes NSD's configuration beside a folder (which is made if it isn't there), as FOLDER.conf: FOLDER, the port that it listens on, that of its primary
# on 127.0.0.1, and further lines of the zone.
nsd_secondary() {
    local folder=$1 own=$2 primary=$3
    shift 3
    mkdir -p "$folder"
    cat >"$folder.conf" <<end
server:
    ip-address: 127.0.0.1@$own
    username: ""
    server-count: 1
    zonesdir: "$folder"
    xfrdir: "$folder"
    database: ""
    zonelistfile: "$folder/zone.list"
    xfrdfile: "$folder/xfrd.state"
    pidfile: ""
    verbosity: 2
remote-control:
    control-enable: no
zone:
    name: example.test
    zonefile: zone
    request-xfr: 127.0.0.1@$primary NOKEY
    provide-xfr: 127.0.0.1 NOKEY
$(printf '    %s\n' "$@")
end
}

# The zone's lines by which NSD asks its primary each two seconds.
nsd_often=("min-refresh-time: 2" "max-refresh-time: 2" "min-retry-time: 2" "max-retry-time: 2")
