mod differences;
mod walk;
