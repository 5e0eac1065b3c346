"""What the commands share: TLVs, captures, logs, looks, hosts, judging and examining."""
