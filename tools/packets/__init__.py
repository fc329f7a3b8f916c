"""The parts of tools/wire_pcap: units and addresses, what one side sent, connections and lines, and the packets that tshark finds in a file."""
