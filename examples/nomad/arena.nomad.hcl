# Untried. Two shards, each on a client of its own that has the packages arena and haproxy and a host volume "arena".
job "arena" {
  datacenters = ["dc1"]
  type        = "service"

  group "shard" {
    count = 2

    constraint {
      distinct_hosts = true
    }

    network {
      port "shard" {
        static = 7444
      }
    }

    volume "state" {
      type   = "host"
      source = "arena"
    }

    task "host" {
      driver       = "exec"
      user         = "arena"
      kill_timeout = "300s"

      # Without it the C library keeps what a closed term gives back (docs/HOST.md, Memory).
      env {
        MALLOC_MMAP_THRESHOLD_ = "16384"
      }

      # Its parent answers Nomad's signal by the order to stop.
      config {
        command = "/usr/bin/arena"
        args    = ["host", "/var/lib/arena", "--config", "/etc/arena/config.json", "--mode", "660"]
      }

      volume_mount {
        volume      = "state"
        destination = "/var/lib/arena"
      }
    }

    task "haproxy" {
      driver = "exec"

      config {
        command = "/usr/sbin/haproxy"
        args    = ["-W", "-db", "-f", "/etc/haproxy/shard.cfg"]
      }

      volume_mount {
        volume      = "state"
        destination = "/var/lib/arena"
      }
    }
  }
}
