#!/usr/bin/env bash
#SBATCH --array=0-29
#SBATCH --time=00:10:00
#SBATCH --mem=200M
mkdir -p runs
servers=$((2 + SLURM_ARRAY_TASK_ID / 10)) run=$((1 + SLURM_ARRAY_TASK_ID % 10))
echo $servers $run | ./simscript run examples/sweep/sweep.sim --input /dev/stdin > runs/$servers-$run.txt
