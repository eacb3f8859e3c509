# Each profile of the point $point that `central show --json` prints, as a call that installs it.
.points[] | select(.id == $point) | .profiles[] | [2, "1", "SetChargingProfile", {connectorId, csChargingProfiles}]
