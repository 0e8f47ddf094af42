"""The queue over HTTP, with tokens for tenants, by aiohttp (Debian: python3-aiohttp). docs/QUEUE.md has its requests."""
