"""A stand-in for Bitcraze's cflib, for tests and rehearsals: signatures FROM MEMORY, over simulated drones that fly
(air.py). `./show fly --simulate` puts it where the library would be; nothing else uses it."""
