/* How lengths are given. */
export const unit: string = "px";
export const perInch: number = 96;
export const smallest: number = 0.25;
