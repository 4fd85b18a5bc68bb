export interface Settings { title: string; verbose: boolean; most: number; }
export type Title = string;
