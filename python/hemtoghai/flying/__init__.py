"""Links, uploads and flights, with real and simulated drones."""
