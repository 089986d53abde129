"""What scripts/draw-steps and scripts/draw-machines share, and how a run of `blk steps` is read and laid out."""
