"""What daig-check asks: files, servers, certificates, comparisons."""
