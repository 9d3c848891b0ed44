"""What tools/alfa.py is made of: ALFA to documents of the service, and documents as ALFA."""
