"""The desk's command: names and rupees in front of the proved programs."""
