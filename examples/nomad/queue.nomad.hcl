# Untried. A queue in PostgreSQL: two runners, each a host with its dispatcher, and two services over HTTP. README.md says what this needs.
job "queue" {
  datacenters = ["dc1"]
  type        = "service"

  group "runner" {
    count = 2

    constraint {
      distinct_hosts = true
    }

    # Makes the tables, or brings them up to date; several may do so at once.
    task "tables" {
      driver = "exec"
      user   = "arena"

      lifecycle {
        hook = "prestart"
      }

      template {
        destination = "secrets/queue.env"
        env         = true
        data        = "ARENA_QUEUE={{ with nomadVar \"nomad/jobs/queue\" }}{{ .url }}{{ end }}\nPGPASSWORD={{ with nomadVar \"nomad/jobs/queue\" }}{{ .password }}{{ end }}\n"
      }

      config {
        command = "/usr/bin/arena"
        args    = ["queue", "init"]
      }
    }

    task "host" {
      driver       = "exec"
      user         = "arena"
      kill_timeout = "60s"

      # Without it the C library keeps what a closed term gives back (docs/HOST.md, Memory).
      env {
        MALLOC_MMAP_THRESHOLD_ = "16384"
      }

      # The queue keeps the jobs, so the host keeps no journals.
      config {
        command = "/usr/bin/arena"
        args    = ["host", "${NOMAD_ALLOC_DIR}/data", "--config", "/etc/arena/config.json", "--durable", "off", "--keep", "1"]
      }
    }

    # What is under way has 30 seconds to end; the rest is run again elsewhere.
    task "dispatcher" {
      driver       = "exec"
      user         = "arena"
      kill_timeout = "60s"

      template {
        destination = "secrets/queue.env"
        env         = true
        data        = "ARENA_QUEUE={{ with nomadVar \"nomad/jobs/queue\" }}{{ .url }}{{ end }}\nPGPASSWORD={{ with nomadVar \"nomad/jobs/queue\" }}{{ .password }}{{ end }}\n"
      }

      config {
        command = "/usr/bin/arena"
        args    = ["queue", "run", "${NOMAD_ALLOC_DIR}/data/socket"]
      }
    }
  }

  group "http" {
    count = 2

    network {
      port "http" {}
    }

    service {
      name     = "arena-queue"
      provider = "nomad"
      port     = "http"

      check {
        type     = "http"
        path     = "/healthz"
        interval = "5s"
        timeout  = "3s"
      }
    }

    task "service" {
      driver = "exec"
      user   = "arena"

      template {
        destination = "secrets/queue.env"
        env         = true
        data        = "ARENA_QUEUE={{ with nomadVar \"nomad/jobs/queue\" }}{{ .url }}{{ end }}\nPGPASSWORD={{ with nomadVar \"nomad/jobs/queue\" }}{{ .password }}{{ end }}\n"
      }

      config {
        command = "/usr/bin/arena"
        args    = ["queue", "serve", "--listen", "0.0.0.0:${NOMAD_PORT_http}"]
      }
    }
  }
}
